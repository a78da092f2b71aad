/* The table-valued function mvt_faults. */
#ifndef MVTGATE_SQLITE_FAULTS_H
#define MVTGATE_SQLITE_FAULTS_H

#include <sqlite3ext.h>

extern const sqlite3_module faults_module;

/* The subtype of a text that is JSON, by which the functions of SQLite take it as such. */
enum { JSON_SUBTYPE = 'J' };

#endif
