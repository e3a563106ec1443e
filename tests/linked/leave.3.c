const int most = 13;
