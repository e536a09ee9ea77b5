; A latch of two gates: ports and signals hold nothing, flags and registers do.
(program latch 1
  (def 1 power) (def 2 ground) (def 3 phia) (def 4 phib) (def 5 phic)
  (def set signal input 6)
  (def clear signal input 7)
  (def q signal output 8)
  (def n signal internal)
  (always
    (setq q (nor clear n))
    (setq n (nor set q))))
