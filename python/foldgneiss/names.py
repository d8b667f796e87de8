"""The rules, flags and verdicts, by the names that the program prints."""

# In the order in which they are tried; docs/monitors.md defines them.
RULES = {
    "X0": "the script asked for a reset",
    "A3": "an interrupt could be accepted in the attestation ROM",
    "A2": "the attestation ROM was entered past its beginning",
    "A1": "the attestation ROM was left before its end (the device never does)",
    "A4": "the ROM's return address lay in the key or in the exclusive stack",
    "K1": "the processor read the key",
    "K2": "the processor touched the exclusive stack",
    "K3": "the ROM wrote elsewhere (the device never does)",
    "K4": "the DMA touched the key",
    "K5": "the DMA touched the exclusive stack",
    "K6": "the DMA was active in the attestation ROM",
    "I1": "an illegal instruction word was fetched",
}
FLAGS = ("exec", "aux", "plain")  # that a policy may ask for
# In the order in which they are tried, but for the first; docs/verifier.md says what each means.
VERDICTS = ("accept", "no-challenge", "version-differs", "chal-differs", "count-differs",
            "bounds-differ", "exec-zero", "aux-zero", "mac-differs")
