module hoarvelt.example/infer

go 1.19
