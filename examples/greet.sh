#!/bin/sh
greeting=Hello
name=World
echo "$greeting, $nmae!"
