; What two of three bits say, and whether all three agree.
(program voter 1
  (def 1 power) (def 2 ground) (def 3 phia) (def 4 phib) (def 5 phic)
  (def a signal input 6)
  (def b signal input 7)
  (def c signal input 8)
  (def majority signal output 9)
  (def agreed signal output 10)
  (always
    (setq majority (nor (not a) (not b)))
    (setq majority (nor (not b) (not c)))
    (setq majority (nor (not a) (not c)))
    (setq agreed (nor a b c))
    (setq agreed (nor (not a) (not b) (not c)))))
