--  A collection of numbers ends without a finalization. Its layer has another collection, in whose finalization a number is allocated still,
--  since numbers need none (RM 4.8, 7.6.1).
with Ada.Finalization; use Ada.Finalization;
with Ada.Text_IO;      use Ada.Text_IO;

procedure In_Collections is
begin
   declare
      type Number is access Integer;

      type T is new Controlled with record
         N : Integer := 0;
      end record;

      overriding procedure Finalize (X : in out T);

      type Ref is access T;

      type Pair is record
         A : Number;
         B : Ref;
      end record;

      P : Pair;

      procedure Finalize (X : in out T) is
      begin
         P.A := new Integer'(X.N + 1);
         Put_Line ("F" & Integer'Image (P.A.all));
      end Finalize;
   begin
      P.A := new Integer'(0);
      P.B := new T;
      P.B.N := P.A.all + 4;
   end;
   Put_Line ("done");
end In_Collections;
