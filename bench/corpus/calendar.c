// Days of the calendar.
_Bool is_leap(int year) { return (year % 4 == 0 && year % 100 != 0) || year % 400 == 0; }
static const unsigned char lengths[12] = {31, 28, 31, 30, 31, 30, 31, 31, 30, 31, 30, 31};
int days_in(int year, int month) {
    if (month < 1 || month > 12) return 0;
    return month == 2 && is_leap(year) ? 29 : lengths[month - 1];
}
// Days since the first of January 1970.
long day_number(long year, unsigned month, unsigned day) {
    year -= month <= 2;
    long era = (year >= 0 ? year : year - 399) / 400;
    unsigned of_era = (unsigned)(year - era * 400);
    unsigned of_year = (153 * (month > 2 ? month - 3 : month + 9) + 2) / 5 + day - 1;
    unsigned day_of_era = of_era * 365 + of_era / 4 - of_era / 100 + of_year;
    return era * 146097 + (long)day_of_era - 719468;
}
int weekday(long year, unsigned month, unsigned day) {
    long n = day_number(year, month, day);
    return (int)(n >= -4 ? (n + 4) % 7 : (n + 5) % 7 + 6);
}
int season(int month) {
    switch (month) {
    case 12: case 1: case 2: return 0;
    case 3: case 4: case 5: return 1;
    case 6: case 7: case 8: return 2;
    case 9: case 10: case 11: return 3;
    default: return -1;
    }
}
long seconds(int hours, int minutes, int rest) { return hours * 3600l + minutes * 60l + rest; }
int clock_of(long seconds) {
    long day = seconds % 86400;
    if (day < 0) day += 86400;
    return (int)(day / 3600 * 10000 + day / 60 % 60 * 100 + day % 60);
}
