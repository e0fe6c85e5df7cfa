import { show } from "#text";
import { card } from "cards";
import { price } from "cards/parts/price";
import { euros } from "@shop/units";
import { rounded } from "numbers";

show([card("two apples"), price(1.006), euros(2.004), rounded(3.1)].join(", "));
