//! Arrivals as they are printed: the minute, its day and time of day, and the line.

use super::columns::{ended, width};
use engine::plan::Names;
use engine::Arrival;

/// The minutes of a day.
const DAY: i64 = 1_440;

/// A text line for each arrival, in columns.
pub fn rows(arrivals: &[Arrival], names: &Names) -> Vec<String> {
    let times = || arrivals.iter().map(|arrival| arrival.time);
    let time_width = width(times());
    let day_width = width(times().map(day));
    let line_width = width(arrivals.iter().map(|arrival| arrival.line));
    let row = |&Arrival { time, line }: &Arrival| {
        let (day, clock) = (day(time), clock(time));
        let row = format!(
            "time {time:time_width$}  day {day:day_width$}  {clock}  line {line:line_width$}"
        );
        ended(row, names.line(line))
    };
    arrivals.iter().map(row).collect()
}

/// The day of a minute; minute 0 begins day 0.
pub fn day(time: i64) -> i64 {
    time.div_euclid(DAY)
}

/// The time of day of a minute.
pub fn clock(time: i64) -> String {
    let minute = time.rem_euclid(DAY);
    format!("{:02}:{:02}", minute / 60, minute % 60)
}

#[cfg(test)]
mod tests {
    use super::{clock, day, rows};
    use engine::plan::Names;
    use engine::Arrival;

    /// The clock goes on before minute 0.
    #[test]
    fn days_and_clock() {
        let shown = |time| (day(time), clock(time));
        assert_eq!(shown(0), (0, "00:00".to_string()));
        assert_eq!(shown(1_439), (0, "23:59".to_string()));
        assert_eq!(shown(1_440), (1, "00:00".to_string()));
        assert_eq!(shown(-1), (-1, "23:59".to_string()));
        assert_eq!(shown(-1_440), (-1, "00:00".to_string()));
    }

    #[test]
    fn columns() {
        let arrivals = [(-3, 1), (8, 10)].map(|(time, line)| Arrival { time, line });
        let expected = [
            "time -3  day -1  23:57  line  1\n",
            "time  8  day  0  00:08  line 10\n",
        ];
        assert_eq!(rows(&arrivals, &Names::default()), expected);
    }
}
