# The commands that tools/gdb gives to the gdb that it starts.
set sysroot
define goto
  monitor goto $arg0
  maintenance flush register-cache
  maintenance flush dcache
  eval "thread %d", $runs
end
document goto
goto N: to turn N of the run, and to the thread that runs there; goto +N, goto -N: so many turns on or back.
end
define writer
  watch -location $arg0
  set $writer_is = $bpnum
  reverse-continue
  delete $writer_is
end
document writer
writer EXPRESSION: back to before the instruction that made a variable what it is.
end
define who
  eval "monitor who %lx %d", (unsigned long)&($arg0), (int)sizeof($arg0)
end
document who
who EXPRESSION: which turn made a variable what it is, from where one stands.
end
define tasks
  monitor tasks
end
document tasks
tasks: what each task waits for.
end
define notes
  monitor notes $arg0
end
document notes
notes N: what the run told in the N turns before.
end
