module fodrascu.example/bcsproved

go 1.19
