; Client 7 gets no access token for a refresh token: its owner has to consent each time.

    ldxw r2 r1 4            ; the kind of the grant: 1 code, 2 refresh, 3 client credentials
    jne64 r2 2 allow
    ldxdw r2 r1 16          ; the client's number
    jne64 r2 7 allow
    mov64 r0 0              ; deny
    exit
allow:
    mov64 r0 1
    exit
