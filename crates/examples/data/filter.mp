; A filter: what comes out is what comes in, twice what came a clock before, and what came a clock before that, modulo 256.
(program filter 8
  (def 1 power) (def 2 ground) (def 3 phia) (def 4 phib) (def 5 phic)
  (def reset signal input 6)
  (def sample port input (7 8 9 10 11 12 13 14))
  (def smoothed port output (15 16 17 18 19 20 21 22))
  (def last register)
  (def older register)
  (always
    (setq smoothed (+ sample (+ (<< last) older)))
    (setq last sample)
    (setq older last)))
