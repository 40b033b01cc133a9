"""How the calls are used from Python; example.py.expected is what it prints."""
import rings

print(rings.home("110100", k=2))
print(rings.text(rings.home(bytes([1, 1, 0, 1, 0, 0]), k=2).ring))
print(rings.classify("0100", k=2), rings.classify([0, 1, 0, 1], k=2))
print(rings.same("110", "011", k=2), rings.even_handed("001011", k=2), rings.apart("010101", "001011", k=2), rings.nearest("110100", "001101", k=2))
print([rings.text(ring) for ring in rings.walk(4, 2)])
print([rings.text(ring) for ring in rings.walk(4, 2, rings.next_bracelet)])
print(rings.next_necklace("1111", k=2), rings.text(rings.next_ring("000111", 2, [3, 3])))
for record in rings.records(bytes.fromhex("52460602000001000101" "525006022C")):
    print(rings.text(record.ring), record.k, record.kind, record.next)
print(rings.write_packed("001011", 2).hex(), rings.convert(bytes.fromhex("52420602000001000101")).hex())
print(rings.sector_shade(0.5, 2, dark=0, light=1), rings.sector_shade(float("nan"), 2, 0, 1), rings.text(rings.ring_shades([0.1, 0.9, 0.2, 0.7], 2, 0, 1)))
print(rings.text(rings.strip(3, 2)), rings.place("110", 2), rings.necklaces(2, 4), rings.lyndon_words(2, 4), rings.stock_home(0xD0))
chosen = rings.pick(8, 2, 3, 32)
print([rings.text(ring) for ring in chosen.rings], chosen.full)
print([rings.text(ring) for ring in rings.pick_guarded(4, 3, 1, 3).rings])
print(rings.sight(["0012", "0112", "0122"], "1200", k=3, most=0), rings.sight(["0012", "0112"], "0000", 3, 0))
for call in (lambda: rings.home("0120", k=2), lambda: rings.next_lyndon("10", k=2), lambda: rings.home("", k=2), lambda: rings.strip(4, 16), lambda: rings.pick(8, 2, 9, 1)):
    try:
        call()
    except rings.Refused as e:
        print(e.number, e.name, e.place)
