// Runs the scripts of the benchmark over a store in memory of another engine: SQLite, or RocksDB. It knows the commands
// open, put, flush, get and scan of one handle, and prints the values that it finds, without the numbers and times that
// `slate` keeps.
//
//     c++ -O2 -DSQLITE bench/peers.cc -lsqlite3     or     c++ -O2 -std=c++17 -DROCKSDB bench/peers.cc -lrocksdb
#include <cstdio>
#include <cstdlib>
#include <iostream>
#include <string>
#include <vector>

static void fail(const std::string &what) {
    std::fprintf(stderr, "peers: %s\n", what.c_str());
    std::exit(1);
}

#ifdef SQLITE
#include <sqlite3.h>

// Rows of a table without row ids. What is put between two flushes is one transaction.
class Rows {
    sqlite3 *db = nullptr;
    sqlite3_stmt *insert = nullptr, *select = nullptr, *range = nullptr;

    void run(const char *text) {
        if (sqlite3_exec(db, text, nullptr, nullptr, nullptr) != SQLITE_OK) fail(sqlite3_errmsg(db));
    }

    sqlite3_stmt *prepared(const char *text) {
        sqlite3_stmt *statement = nullptr;
        if (sqlite3_prepare_v2(db, text, -1, &statement, nullptr) != SQLITE_OK) fail(sqlite3_errmsg(db));
        return statement;
    }

    static void bind(sqlite3_stmt *statement, int place, const std::string &bytes) {
        sqlite3_bind_blob(statement, place, bytes.data(), bytes.size(), SQLITE_STATIC);
    }

    static std::string column(sqlite3_stmt *statement, int place) {
        return std::string(static_cast<const char *>(sqlite3_column_blob(statement, place)), sqlite3_column_bytes(statement, place));
    }

  public:
    Rows() {
        if (sqlite3_open(":memory:", &db) != SQLITE_OK) fail("SQLite");
        run("CREATE TABLE rows (key BLOB PRIMARY KEY, value BLOB) WITHOUT ROWID; BEGIN");
        insert = prepared("INSERT OR REPLACE INTO rows VALUES (?, ?)");
        select = prepared("SELECT value FROM rows WHERE key = ?");
        range = prepared("SELECT key, value FROM rows WHERE key >= ? AND key < ? ORDER BY key");
    }

    void put(const std::string &key, const std::string &value) {
        bind(insert, 1, key);
        bind(insert, 2, value);
        if (sqlite3_step(insert) != SQLITE_DONE) fail(sqlite3_errmsg(db));
        sqlite3_reset(insert);
    }

    void flush() { run("COMMIT; BEGIN"); }

    bool get(const std::string &key, std::string &value) {
        bind(select, 1, key);
        bool found = sqlite3_step(select) == SQLITE_ROW;
        if (found) value = column(select, 0);
        sqlite3_reset(select);
        return found;
    }

    void scan(const std::string &low, const std::string &high, std::vector<std::pair<std::string, std::string>> &rows) {
        bind(range, 1, low);
        bind(range, 2, high);
        while (sqlite3_step(range) == SQLITE_ROW) rows.emplace_back(column(range, 0), column(range, 1));
        sqlite3_reset(range);
    }
};
#else
#include <memory>
#include <rocksdb/db.h>
#include <rocksdb/env.h>

// A database whose files are in memory. Puts go to its log, too.
class Rows {
    std::unique_ptr<rocksdb::Env> files{rocksdb::NewMemEnv(rocksdb::Env::Default())};
    rocksdb::DB *db = nullptr;

    static void check(const rocksdb::Status &status) {
        if (!status.ok()) fail(status.ToString());
    }

  public:
    Rows() {
        rocksdb::Options options;
        options.create_if_missing = true;
        options.env = files.get();
        check(rocksdb::DB::Open(options, "/rows", &db));
    }

    void put(const std::string &key, const std::string &value) { check(db->Put(rocksdb::WriteOptions(), key, value)); }

    void flush() { check(db->FlushWAL(false)); }

    bool get(const std::string &key, std::string &value) { return db->Get(rocksdb::ReadOptions(), key, &value).ok(); }

    void scan(const std::string &low, const std::string &high, std::vector<std::pair<std::string, std::string>> &rows) {
        std::unique_ptr<rocksdb::Iterator> cursor(db->NewIterator(rocksdb::ReadOptions()));
        for (cursor->Seek(low); cursor->Valid() && cursor->key().compare(high) < 0; cursor->Next())
            rows.emplace_back(cursor->key().ToString(), cursor->value().ToString());
    }
};
#endif

// The fields of a line, of which the first is the moment.
static std::vector<std::string> fields_of(const std::string &line) {
    std::vector<std::string> fields;
    for (size_t begin = 0; begin <= line.size();) {
        size_t end = line.find(' ', begin);
        if (end == std::string::npos) end = line.size();
        fields.push_back(line.substr(begin, end - begin));
        begin = end + 1;
    }
    return fields;
}

int main() {
    std::ios::sync_with_stdio(false);
    Rows store;
    std::string line, out;
    while (std::getline(std::cin, line)) {
        std::vector<std::string> fields = fields_of(line);
        const std::string &name = fields.at(1);
        if (name == "put") {
            store.put(fields.at(3), fields.at(4));
        } else if (name == "flush") {
            store.flush();
        } else if (name == "get") {
            std::string value;
            out += store.get(fields.at(3), value) ? "value " + value + "\n" : "none\n";
        } else if (name == "scan") {
            std::vector<std::pair<std::string, std::string>> rows;
            store.scan(fields.at(3).substr(1), fields.at(4).substr(1), rows);
            out += "rows " + std::to_string(rows.size()) + "\n";
            for (const auto &row : rows) out += "row " + row.first + " " + row.second + "\n";
        } else if (name != "open") {
            fail("the command " + name);
        }
        if (out.size() > 1 << 16) {
            std::fwrite(out.data(), 1, out.size(), stdout);
            out.clear();
        }
    }
    std::fwrite(out.data(), 1, out.size(), stdout);
    return std::fflush(stdout) == 0 ? 0 : 1;
}
