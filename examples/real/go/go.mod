module real

go 1.19

require vyrdlog v0.0.0

replace vyrdlog => ../../../loggers/go
