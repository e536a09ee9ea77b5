; The greatest common divisor of a and b, which are taken in the clock after a reset.
(program gcd 8
  (def 1 power) (def 2 ground) (def 3 phia) (def 4 phib) (def 5 phic)
  (def reset signal input 6)
  (def a port input (10 11 12 13 14 15 16 17))
  (def b port input (18 19 20 21 22 23 24 25))
  (def q port output (26 27 28 29 30 31 32 33))
  (def done signal output 7)
  (def x register)
  (def y register)
  (always
    (setq q x)
    (setq done (= x y)))
  (process main 0
    (par (setq x a) (setq y b))
    loop
    (cond
      ((= x y) (go loop))
      ((< x y) (setq y (- y x)) (go loop))
      (t (setq x (- x y)) (go loop)))))
