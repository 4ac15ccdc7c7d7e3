"""1,100 INSERTs, each a task of a view, and a query that brings the view up to date: 68 steps of 16 tasks, and one of 12."""
import sys

sys.stdout.write("@setup\ncreate table t (k int, primary key (k))\ncreate view last as select k from t where k > 1098\n@session a\n")
sys.stdout.writelines("insert into t values (%d)\n" % k for k in range(1, 1101))
sys.stdout.write("select * from last\nselect * from last\n")
