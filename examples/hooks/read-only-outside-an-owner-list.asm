; Owners 1, 4 and 9 may hand out every scope; grants of all others, and those of clients on
; their own (owner 0), keep the registry's first scope alone.

    mov64 r0 1              ; allow
    ldxdw r2 r1 24          ; the owner's number
    jeq64 r2 1 done
    jeq64 r2 4 done
    jeq64 r2 9 done
    ldxdw r3 r1 40          ; the scopes
    and64 r3 1              ; bit 0 alone
    stxdw r1 40 r3
done:
    exit
