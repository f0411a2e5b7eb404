; what 192.0.2.2 sends from, or is sent to, port 8080
      ldh [12]
      jeq #0x800, ipv4, drop      ; IPv4?
ipv4: ldb [23]
      jeq #6, tcp, drop           ; TCP?
tcp:  ldh [20]
      jset #0x1fff, drop          ; a later fragment has no ports
      ldx 4*([14]&0xf)            ; how long the IPv4 header is
from: ld [26]
      jeq #0xc0000202, sent, to   ; 192.0.2.2 sent it?
sent: ldh [x + 14]
      jeq #8080, keep, to         ; from port 8080?
to:   ld [30]
      jeq #0xc0000202, got, drop  ; it goes to 192.0.2.2?
got:  ldh [x + 16]
      jeq #8080, keep, drop       ; to port 8080?
keep: ret #262144
drop: ret #0
