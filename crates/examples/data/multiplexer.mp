; y is a where s is 0, and b where s is 1. Two forms write y, and the values that they write are ORed.
(program multiplexer 1
  (def 1 power) (def 2 ground) (def 3 phia) (def 4 phib) (def 5 phic)
  (def s signal input 6)
  (def a signal input 7)
  (def b signal input 8)
  (def y signal output 9)
  (always
    (setq y (nor s (not a)))
    (setq y (nor (not s) (not b)))))
