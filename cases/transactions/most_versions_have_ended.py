"""A table is filled and emptied until most of its versions have ended, while a transaction keeps an early snapshot. Both read it by key, by
a range, whole and through views; rows come, go and change from then on, a commit conflicts, and clean-ups come between."""

FILL = ", ".join("(%d, %d, %d)" % (k, k % 3, 2 * k) for k in range(300))
SETUP = """@setup
create table stock (k int, g int, n int, primary key (k))
create table grade (g int, name text, primary key (g))
create view per_grade as select g, count(*) as many, sum(n) as pieces from stock group by g
create view named as select s.k, g.g, g.name, s.n from stock s join grade g on s.g = g.g
insert into grade values (0, 'low'), (1, 'middle'), (2, 'high')"""
EARLY = """@session early
begin
select * from stock where k >= 297
select * from stock where k >= 297
select * from stock where k = 7
select * from per_grade
select * from named where k < 3
insert into stock values (900, 1, 5)
update stock set n = 0 where k < 2
select * from stock where k < 3 or k > 297
select * from per_grade
commit
select * from per_grade"""
AFTER = """select * from stock
insert into stock values (5, 2, 50), (1, 1, 10), (9, 0, 90)
select * from stock
update stock set n = n + 1 where k = 5
update stock set g = 1 where k = 9
delete from stock where k = 1
select * from stock where k >= 5 and k <= 7
select * from stock order by n desc
select * from per_grade
select * from named
insert into stock values (5, 0, 0)
insert into stock values (1, 0, 11), (8, 2, 80)
delete from stock where n > 60
select * from stock
select * from named where n > 20
select * from per_grade"""

print(SETUP)
print(EARLY)
print("@session busy")
for _ in range(5):
    print("insert into stock values " + FILL)
    print("delete from stock")
print(AFTER)
# the early transaction sees the first 300 rows, the busy session goes past it
print("@order busy early early" + " busy" * 11 + " early early" + " busy" * 4 + " early clean early" + " busy" * 4 + " early early early clean early early busy busy busy clean")
