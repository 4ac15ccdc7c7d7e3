"""Forty commits wait for two views, and a reader stands behind the twentieth. A query forces steps of at most 16 commits, none
across the reader: 1 to 16, 17 to 20, 21 to 36 and 37 to 40. The reader still finds its own rows."""
print("""@setup
create table item (id int, price int, primary key (id))
create table sale (no int, item int, qty int, primary key (no))
create view lines as select s.no, i.id, i.price, s.qty from sale s, item i where s.item = i.id
create view per_item as select s.item, sum(s.qty) as total, count(*) as n from sale s, item i where s.item = i.id group by s.item
@session writer
insert into item values (1, 0)""")
for _ in range(18):
    print("update item set price = price + 1 where id = 1")
print("insert into sale values (100, 1, 5)")
for _ in range(20):
    print("update item set price = price + 1 where id = 1")
print("""select * from lines
select * from per_item
@session reader
begin
select * from lines
select * from per_item
commit""")
print("@order" + 20 * " writer" + " reader" + 22 * " writer" + 3 * " reader")
