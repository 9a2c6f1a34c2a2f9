; Access tokens of client 7 live for at most 120 seconds.
;
; The lesser of the lifetime that was asked and the one that stands in the record counts,
; so the store below never makes a lifetime longer.

    mov64 r0 1              ; allow
    ldxdw r2 r1 16          ; the client's number
    jne64 r2 7 done
    stw r1 48 120           ; the lifetime, in seconds
done:
    exit
