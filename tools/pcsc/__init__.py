"""What tools/alarms and tools/box share: the card in a PC/SC reader, and what a box has on it."""
import signal

# Ctrl-C before anything has begun ends the program at once, and shows nothing of its code.
if signal.getsignal(signal.SIGINT) is signal.default_int_handler:
    signal.signal(signal.SIGINT, signal.SIG_DFL)
