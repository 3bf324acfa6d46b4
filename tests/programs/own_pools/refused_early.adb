--  An Allocate raises in a declaration: the handlers of its block do not see that (RM 11.4, 13.11).
with Ada.Finalization;        use Ada.Finalization;
with Ada.Text_IO;             use Ada.Text_IO;
with System;                  use System;
with System.Storage_Elements; use System.Storage_Elements;
with Block_Pools;             use Block_Pools;

procedure Refused_Early is
   type T is new Controlled with record
      N : Integer := 0;
   end record;

   overriding procedure Finalize (X : in out T);

   type Pool is new Block_Pool with null record;

   overriding procedure Allocate (X : in out Pool; A : out System.Address; S, L : in Storage_Count);

   procedure Finalize (X : in out T) is
   begin
      Put_Line ("F" & Integer'Image (X.N));
   end Finalize;

   procedure Allocate (X : in out Pool; A : out System.Address; S, L : in Storage_Count) is
   begin
      raise Constraint_Error;
   end Allocate;
begin
   declare
      P : Pool (16, 1);

      type Ref is access T with Storage_Pool => P;

      A : Ref := new T;
   begin
      Put_Line ("in");
   exception
      when others =>
         Put_Line ("inner");
   end;
exception
   when Constraint_Error =>
      Put_Line ("outer");
end Refused_Early;
