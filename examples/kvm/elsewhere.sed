# Makes another board of board.toml, on which the machines have the same functions in the same slots, but elsewhere: a's behind
# two bridges, and b's on bus 0.
1,2c #:schema ../board.schema.json
s/0x1000, 0xffff/0x4000, 0xffff/
s/0xc0000000, 0xdfffffff/0xe0000000, 0xefffffff/
/^mem = /a\
\
[[bridge]]\
at = "5.0"\
vendor = 0x1234\
device = 0x0002\
io = "16"\
pref = "none"
# a's functions, then b's; in a single step, they would be mistaken for each other
s|"([1245])\.0"|"a\1"|g
s|"3\.0/([123])\.0"|"b\1"|g
s|"3\.0"|"5.0/7.0"|
s|"a1"|"5.0/7.0/9.0"|
s|"a2"|"5.0/3.0"|
s|"a([45])"|"5.0/\1.0"|g
s|"b3"|"4.0"|
s|"b([12])"|"\1.0"|g
