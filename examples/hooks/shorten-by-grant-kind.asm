; A token for a code lives for an hour, one for a refresh token for ten minutes,
; and one of a client on its own for five, each unless less was asked.

    mov64 r0 1              ; allow
    ldxw r2 r1 4            ; the kind of the grant: 1 code, 2 refresh, 3 client credentials
    mov64 r3 3600
    jeq64 r2 1 store
    mov64 r3 600
    jeq64 r2 2 store
    mov64 r3 300
store:
    stxw r1 48 r3           ; the lifetime, in seconds
    exit
