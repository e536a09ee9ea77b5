# Checks the widths and spacings of a CIF file by the lambda rules 1 to 6: klayout -b -r klayout_rules.py -rd cif=FILE
import pya

LAMBDA = 2500  # thousandths of a micrometre
layout = pya.Layout()
layout.read(cif)
top = layout.top_cell()
breaches = 0
for name, width, space in [("ND", 2, 3), ("NP", 2, 2), ("NM", 3, 3)]:
    region = pya.Region(top.begin_shapes_rec(layout.layer(pya.LayerInfo(name))))
    region.merge()
    breaches += region.width_check(width * LAMBDA, False, pya.Region.Projection).count()
    breaches += region.space_check(space * LAMBDA, False, pya.Region.Projection).count()
print("breach" if breaches else "clean")
