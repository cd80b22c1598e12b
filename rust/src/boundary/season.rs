//! The season report.

call!(season_report = burgee_season_report(bytes table, bytes log, buffer out));
