# in the folder of the repository: python3 examples/register.py
import sys
sys.path.insert(0, "python")
from huztiral import Edition, Refused

register = Edition([1, 1, 1, 1], 1).open()


def sell(serial, order, item):
    try:
        serial, _ = register.claim(serial, order, item)
        print(f"serial {serial} is for order {order}, item line {item}")
    except Refused as refusal:  # here its detail is the order that has the serial
        print("refused", refusal.number, "order", refusal.detail)


seen = register.peek()  # two workers look, and both see serial 1
sell(seen.serial, 1007, 1)  # the first takes it for order 1007
sell(seen.serial, 1014, 1)  # the second is refused, and learns who has it
sell(2, 1007, 2)  # the second copy in the basket of order 1007
first, _ = register.claim_all(3, [1021, 1038], [1, 1])  # a club takes two, or neither
print("serials", first, "to", first + 1, "are for the club")
