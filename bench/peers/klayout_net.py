# Extracts the network of switches of a CIF file: klayout -b -r klayout_net.py -rd cif=FILE -rd mode=flat
import pya

layout = pya.Layout()
layout.read(cif)
top = layout.top_cell()
if mode == "flat":
    found = pya.LayoutToNetlist(top.name, layout.dbu)
else:
    found = pya.LayoutToNetlist(pya.RecursiveShapeIterator(layout, top, []))


def drawn(name):
    index = layout.layer(pya.LayerInfo(name))
    if mode == "flat":
        region = pya.Region(top.begin_shapes_rec(index))
        found.register(region, name)
        return region
    return found.make_layer(index, name)


diffusion, polysilicon, metal, cut, buried, implant = (drawn(name) for name in ["ND", "NP", "NM", "NC", "NB", "NI"])
gates = polysilicon & (diffusion - buried)
ends = diffusion - gates
joined = buried & polysilicon & diffusion
for region, name in [(gates, "gates"), (ends, "ends"), (joined, "joined")]:
    found.register(region, name)
enhancement, depletion = gates - implant, gates & implant
for kind, channel in [("enhancement", enhancement), ("depletion", depletion)]:
    found.register(channel, kind)
    found.extract_devices(pya.DeviceExtractorMOS3Transistor(kind),
                          {"SD": ends, "G": channel, "tS": ends, "tD": ends, "tG": polysilicon})
for layer in [ends, polysilicon, metal, cut, joined]:
    found.connect(layer)
for lower, upper in [(cut, metal), (cut, polysilicon), (cut, ends), (joined, polysilicon), (joined, ends)]:
    found.connect(lower, upper)
found.extract_netlist()


# A circuit stands for each call of its definition; one whose nets lead nowhere else is no part of another.
times = {top.name: 1}
for index in layout.each_cell_top_down():
    for call in layout.cell(index).each_inst():
        times[call.cell.name] = times.get(call.cell.name, 0) + times[layout.cell(index).name] * call.size()
counts = {"enhancement": 0, "depletion": 0}
for circuit in found.netlist().each_circuit():
    for device in circuit.each_device():
        counts[device.device_class().name] += times[circuit.name]
print("enhancement", counts["enhancement"], "depletion", counts["depletion"])
