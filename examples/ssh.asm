; TCP to or from port 22 over IPv4, but no fragments after the first
      ldh [12]
      jeq #0x800, ipv4, drop
ipv4: ldb [23]
      jneq #6, drop             /* TCP */
      ldh [20]
      jset #0x1fff, drop        ; a fragment has no ports
      ldx 4*([14]&0xf)
      ldh [x + 14]
      jeq #22, keep
      ldh [x + 16]
      jneq #22, drop
keep: ret #262144
drop: ret #0
