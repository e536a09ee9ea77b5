; Writes the Fibonacci numbers 1 1 2 3 5 into a memory, and then reads them back.
; The memory sees bus: bits 0 to 7 are its next address, and where bit 8 is 1 the bits above are stored at the last one.
(program fibonacci 16
  (def 1 power) (def 2 ground) (def 3 phia) (def 4 phib) (def 5 phic)
  (def reset signal input 6)
  (def word port input (7 8 9 10 11 12 13 14 15 16 17 18 19 20 21 22))
  (def bus port output (23 24 25 26 27 28 29 30 31 32 33 34 35 36 37 38))
  (def read port output (39 40 41 42 43 44 45 46 47 48 49 50 51 52 53 54))
  (def one constant 512)
  (def store constant 256)
  (def n register)
  (def this register)
  (def next register)
  (process main 0
    (par (setq this one) (setq next one))
    write
    (cond
      ((= n 5) (setq n 1))
      (t
        (setq bus (word-or this (word-or store (1+ n))))
        (setq this next)
        (setq next (+ this next))
        (setq n (1+ n))
        (go write)))
    read_back
    (par (setq bus n) (setq read word) (setq n (1+ n)) (go read_back))))
