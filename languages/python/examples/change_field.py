"""Marks each order of a dump as paid, and removes its coupon: change_field.py IN.bson OUT.bson"""
import sys

import vbson


def changed(order):
    order["paid"] = True
    order.pop("coupon", None)
    return order


with open(sys.argv[1], "rb") as dump, open(sys.argv[2], "wb") as out:
    count = vbson.dump_documents(map(changed, vbson.iter_documents(dump)), out)
print(f"{count} orders")
