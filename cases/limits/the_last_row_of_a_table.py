"""Two transactions insert one row each where the table has room for one more row: the second commit is refused."""


def insert(keys):
    print("insert into big values " + ", ".join(f"({key})" for key in keys))


print("@setup\ncreate table big (k int, primary key (k))\n@session fill")
for thousand in range(65):
    insert(range(1000 * thousand, 1000 * thousand + 1000))
insert(range(65000, 65534))
print("@session a\nbegin\ninsert into big values (70000)\ncommit\ninsert into big values (70001)")
print("@session b\nbegin\ninsert into big values (-1)\ncommit\ndelete from big where k = 0\ninsert into big values (-1)")
print("@order" + " fill" * 66)
