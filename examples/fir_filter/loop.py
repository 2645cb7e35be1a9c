"""Each sample adds the taps, times itself, to what comes from its own place on."""
taps = [int(line.split(",")[1]) for line in open("tap.csv")]
samples = [int(line.split(",")[1]) for line in open("x.csv")]

answer = [0] * (len(samples) + len(taps))
for n, sample in enumerate(samples):
    for k, tap in enumerate(taps):
        answer[n + k] += tap * sample
for n in range(len(samples)):
    print("Y", n, answer[n], sep=",")
