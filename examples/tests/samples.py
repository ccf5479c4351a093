"""A log that the tests of what is explained and of what is followed share."""

# Its specification has a line of each kind that a case may have. The last reply is refused.
EFFECTS = """vyrd 3 own 0 1
register turn 3
list waiting
list spare
method put k
  allow (reply == 1)
    set [k] 5
    set {k} none
    append waiting k
    prepend waiting 9
    drop last spare
    drop first spare
    set turn (turn + 1)
# Then all that is shown is gone, and one list.
method wipe
  allow (reply == 1)
    clear
    clear spare
method ask
  allow ((reply == [7]) and ([8] or {7}))
log
0 call put 7
0 commit
0 return 1
0 call wipe
0 commit
0 return 1
0 call ask
0 commit
0 return 9
"""
