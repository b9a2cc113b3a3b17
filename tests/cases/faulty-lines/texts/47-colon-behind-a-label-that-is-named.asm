routine a budget 3
x:      JMP x:
