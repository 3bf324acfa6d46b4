--  An allocated object takes the value of another one, and is adjusted (RM 4.8, 7.6).
with Ada.Finalization; use Ada.Finalization;
with Ada.Text_IO;      use Ada.Text_IO;

procedure Copied is
   type T is new Controlled with record
      N : Integer := 0;
   end record;

   overriding procedure Adjust (X : in out T);
   overriding procedure Finalize (X : in out T);

   procedure Adjust (X : in out T) is
   begin
      X.N := X.N + 10;
   end Adjust;

   procedure Finalize (X : in out T) is
   begin
      Put_Line ("F" & Integer'Image (X.N));
   end Finalize;
begin
   declare
      type Ref is access T;

      A, B : Ref;
   begin
      A := new T;
      A.N := 1;
      B := new T'(A.all);
      Put_Line (Integer'Image (A.N) & Integer'Image (B.N));
   end;
end Copied;
