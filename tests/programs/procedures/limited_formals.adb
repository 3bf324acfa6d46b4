--  Formals of limited record types name the actual itself: what is written through one is seen through the other, and in
--  the actual; a controlled one is not adjusted (RM 6.2, 7.5).
with Ada.Finalization; use Ada.Finalization;
with Ada.Text_IO;      use Ada.Text_IO;

procedure Limited_Formals is
   type R is limited record
      N : Integer := 5;
   end record;

   type C is new Limited_Controlled with record
      Inner : R;
   end record;

   overriding procedure Finalize (X : in out C);

   function Value (X : R) return Integer is
   begin
      return X.N;
   end Value;

   procedure Add (X : in out R; N : in Integer) is
   begin
      X.N := X.N + N;
   end Add;

   procedure Both (X : out R; Y : in R) is
   begin
      Add (X, 1);
      Put_Line (Integer'Image (Value (X)) & Integer'Image (Value (Y)));
      X.N := 2 * Y.N;
   end Both;

   procedure Inside (X : in out C; Y : in C) is
   begin
      Add (X.Inner, 1);
      Put_Line (Integer'Image (Y.Inner.N));
   end Inside;

   procedure Finalize (X : in out C) is
   begin
      Put_Line ("finalize" & Integer'Image (Value (X.Inner)));
   end Finalize;

   A, B : R;
   V    : C;
begin
   Both (A, A);
   Put_Line (Integer'Image (A.N));
   Both (B, A);
   Put_Line (Integer'Image (B.N));
   Inside (V, V);
end Limited_Formals;
