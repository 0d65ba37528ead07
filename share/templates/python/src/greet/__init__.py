"""Greets."""


def greeting():
    return "hello"


def main():
    print(greeting())
