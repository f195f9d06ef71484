-- A database in memory under a small load: rows of data and of zeros, a third of them deleted, then looked up.
-- GLIBC_TUNABLES=glibc.malloc.hugetlb=1 sqlite3 :memory: < blobs.sql
create table rows(number integer primary key, body blob);
with recursive n(i) as (select 1 union all select i + 1 from n where i < 40000)
insert into rows select i, case when i % 4 then randomblob(1000) else zeroblob(6000) end from n;
delete from rows where number % 3 = 0;
with recursive n(i) as (select 1 union all select i + 1 from n where i < 2000000000)
select count(length(body)) from n join rows on number = i % 40000;
