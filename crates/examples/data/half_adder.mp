; The sum of two bits, and the carry. The carry is 1 where neither bit is 0.
(program half-adder 1
  (def 1 power) (def 2 ground) (def 3 phia) (def 4 phib) (def 5 phic)
  (def a signal input 6)
  (def b signal input 7)
  (def sum signal output 8)
  (def carry signal output 9)
  (always
    (setq sum (nor (nor a b) (nor (not a) (not b))))
    (setq carry (nor (not a) (not b)))))
