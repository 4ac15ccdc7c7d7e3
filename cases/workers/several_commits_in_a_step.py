"""Seventeen commits are pending: a worker's first step takes sixteen of them, its second one the last."""
print("@setup\ncreate table t (k int, n int, primary key (k))\ncreate view v as select k, n from t\n@session a")
print("insert into t values (1, 0)")
for _ in range(16):
    print("update t set n = n + 1")
print("select * from v\n@order" + " a" * 17 + " work 8 work 8 work 8 a")
