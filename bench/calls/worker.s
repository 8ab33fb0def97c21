; a call in each fifth turn: REFRESH_TASK_ID of task 0
loop:   movs r0, #10
        mov r11, r0
        movs r4, #0
        svc #0
        b loop
