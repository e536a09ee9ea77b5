; One of four lines is 1, by a number of two bits.
(program decoder 1
  (def 1 power) (def 2 ground) (def 3 phia) (def 4 phib) (def 5 phic)
  (def high signal input 6)
  (def low signal input 7)
  (def y0 signal output 8)
  (def y1 signal output 9)
  (def y2 signal output 10)
  (def y3 signal output 11)
  (always (setq y0 (nor high low)))
  (always (setq y1 (nor high (not low))))
  (always (setq y2 (nor (not high) low)))
  (always (setq y3 (nor (not high) (not low)))))
