# on to the fault, and back to who made it happen
info threads
break add
continue
backtrace
print *l
finish
next
delete
continue
backtrace
print line
writer line.to
print/c byte
print line
reverse-step
reverse-next
reverse-next
list
# on over the restart
goto 538
continue
tasks
notes 300
# who else there is, and how it stands
thread 1
backtrace
stepi
x/3i $pc
print $turn
who line.length
