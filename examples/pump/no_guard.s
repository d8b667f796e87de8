; A guard that looks at nothing: the region begins whatever the vectors are.

        .section .er.guard, "ax"
        .globl  er_min
er_min: br      #er_entry
