; The registry's second scope is granted from 8 to 18 o'clock (UTC) alone.
;
; Scopes are bits: the registry's first name is bit 0, the second bit 1. Where nothing
; else was asked for, nothing is left, and the client is told invalid_scope.

    mov64 r0 1              ; allow
    ldxdw r2 r1 8           ; the moment, in seconds
    mod64 r2 86400          ; .. of the day
    div64 r2 3600           ; the hour
    jlt64 r2 8 closed
    jlt64 r2 18 open
closed:
    ldxdw r3 r1 40          ; the scopes
    and64 r3 -3             ; all but bit 1
    stxdw r1 40 r3
open:
    exit
