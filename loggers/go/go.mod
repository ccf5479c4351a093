module vyrdlog

go 1.19
