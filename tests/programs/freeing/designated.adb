--  Access values of a general type designate declared and allocated objects: access attributes, and conversions
--  (RM 3.10.2, 4.6).
with Ada.Finalization; use Ada.Finalization;
with Ada.Text_IO;      use Ada.Text_IO;

procedure Designated is
   type T is new Controlled with record
      N : Integer := 0;
   end record;

   overriding procedure Finalize (X : in out T);

   procedure Finalize (X : in out T) is
   begin
      Put_Line ("F" & Integer'Image (X.N));
   end Finalize;
begin
   declare
      type Ref is access T;
      type G is access all T;

      X : aliased T;
      A : Ref;
      V : G;
   begin
      X.N := 4;
      V := X'Access;
      V.N := 5;
      A := new T;
      A.N := 6;
      V := G (A);
      Put_Line ("v" & Integer'Image (V.N));
      if V = G (A) then
         Put_Line ("same");
      end if;
   end;
end Designated;
