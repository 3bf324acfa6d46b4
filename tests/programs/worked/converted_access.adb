--  A value of a pool-specific access type is converted to a general one, which designates a declared object before:
--  the object is the same (RM 3.10.2, 4.5.2, 4.6).
with Ada.Finalization; use Ada.Finalization;
with Ada.Text_IO;      use Ada.Text_IO;

procedure Converted_Access is
   type T is new Controlled with record
      N : Integer := 0;
   end record;

   overriding procedure Adjust (X : in out T);
   overriding procedure Finalize (X : in out T);

   procedure Adjust (X : in out T) is
   begin
      Put_Line ("A" & Integer'Image (X.N));
   end Adjust;

   procedure Finalize (X : in out T) is
   begin
      Put_Line ("F" & Integer'Image (X.N));
   end Finalize;
begin
   declare
      type Ref is access T;
      type G is access all T;

      X : aliased T;
      A : Ref;
      V : G;
   begin
      X.N := 4;
      V := X'Access;
      V.N := 5;
      A := new T;
      A.N := 6;
      V := G (A);
      Put_Line ("v" & Integer'Image (V.N));
      if V = G (A) then
         Put_Line ("same");
      end if;
   end;
end Converted_Access;
