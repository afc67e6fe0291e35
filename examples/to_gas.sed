# Changes an assembly text of ggvax into the spelling of GNU as for the VAX (ELF). Usage: sed -E -f examples/to_gas.sed hi.s >hi.gas
# A register gets a `%` in front. It stands at an operand's begin, behind a parenthesis or behind a bracket, where no name is spelled so.
s/([[:blank:],([])(r[0-9]+|[afs]p)/\1%\2/g
# Memory at a number is the number alone: by `*$` as 2.40 writes an address of the operand's size.
s/\*\$(-?[0-9]+)/\1/g
# An alignment is a power of two by this word on every machine.
s/^([[:blank:]])\.align/\1.p2align/
