import enc

bank = enc.Module("examples/bank/bank")
for delta in ("examples/bank/bank1", "examples/bank/bank2"):
    print("generation", bank.apply(delta))
for entry in bank.entries(2):
    if entry.token.table == "MethodDef":
        print("new" if entry.inserted else "updated", bank.name(entry.token))
try:
    bank.apply("examples/bank/bank2")
except enc.Refused as refused:
    print("refused", refused)
