# a breakpoint in one task, while the other waits
break upper.c:36
continue
print t
info threads
thread 3
backtrace 3
frame 2
print leases
print text
print changed
# who changes the client's text: the server, by the lease
delete
watch -location text[4]
continue
reverse-continue
delete
thread 2
backtrace
finish
next
next
reverse-next
reverse-next
# back into the one who sent the message, whoever ran since
thread 3
reverse-finish
goto 762
backtrace
continue
info threads
