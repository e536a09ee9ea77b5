; Sends bytes over one line, a bit a clock: a start bit, which is 0, the eight bits from the lowest, and a stop bit, which is 1.
; While it is ready the line is 1, and a byte that is offered is taken.
(program transmitter 8
  (def 1 power) (def 2 ground) (def 3 phia) (def 4 phib) (def 5 phic)
  (def reset signal input 6)
  (def offered signal input 7)
  (def byte port input (8 9 10 11 12 13 14 15))
  (def ready signal output 16)
  (def line signal output 17)
  (def left register)
  (def sent register)
  (process sender 0
    idle
    (par
      (setq ready t)
      (setq line t)
      (setq left byte)
      (setq sent 0)
      (cond (offered) (t (go idle))))
    (setq line f)
    bits
    (par
      (setq line (bit 0 left))
      (setq left (>> left))
      (setq sent (1+ sent))
      (cond ((= sent 7)) (t (go bits))))
    (par (setq line t) (go idle))))
